// gVisor's netstack: packets by link/channel, UDP endpoints, time by faketime's manual clock. It's also the example of
// an adapter for a stack that can't fork, as one in Go, in Java or on a board: it reads the judge's lines itself, makes
// a new stack for each case, and reports a panic as `crash TEXT`.
package main

import (
	"bufio"
	"bytes"
	"encoding/hex"
	"fmt"
	"math"
	"net"
	"os"
	"strconv"
	"strings"
	"time"

	"gvisor.dev/gvisor/pkg/bufferv2"
	"gvisor.dev/gvisor/pkg/tcpip"
	"gvisor.dev/gvisor/pkg/tcpip/faketime"
	"gvisor.dev/gvisor/pkg/tcpip/header"
	"gvisor.dev/gvisor/pkg/tcpip/link/channel"
	"gvisor.dev/gvisor/pkg/tcpip/network/ipv4"
	"gvisor.dev/gvisor/pkg/tcpip/stack"
	"gvisor.dev/gvisor/pkg/tcpip/transport/icmp"
	"gvisor.dev/gvisor/pkg/tcpip/transport/udp"
	"gvisor.dev/gvisor/pkg/waiter"
)

const nic = 1

var out = bufio.NewWriterSize(os.Stdout, 1<<20)

// HANDLE_LOCAL=1: as gVisor's sandbox sets it; otherwise netstack's default.
var handleLocal = os.Getenv("HANDLE_LOCAL") == "1"

// set by the linker: -ldflags "-X main.version=20221219"
var version = "unknown"

type host struct {
	step      int
	clock     *faketime.ManualClock
	stack     *stack.Stack
	link      *channel.Endpoint
	sockets   map[int]tcpip.Endpoint
	connected map[int]bool
	held      map[int]bool
}

func must(err tcpip.Error) {
	if err != nil {
		panic(err.String())
	}
}

func address(text string) tcpip.Address { return tcpip.Address(net.ParseIP(text).To4()) }

func number(text string) int {
	value, err := strconv.Atoi(text)
	if err != nil {
		panic(err)
	}
	return value
}

func bytesOf(text string) []byte {
	if text == "-" {
		return nil
	}
	data, err := hex.DecodeString(text)
	if err != nil {
		panic(err)
	}
	return data
}

func hexOf(data []byte) string {
	if len(data) == 0 {
		return "-"
	}
	return hex.EncodeToString(data)
}

func boot(mtu int) *host {
	h := &host{
		clock:     faketime.NewManualClock(),
		sockets:   map[int]tcpip.Endpoint{},
		connected: map[int]bool{},
		held:      map[int]bool{},
	}
	// the time isn't 0 when a host boots
	h.clock.Advance(time.Hour)
	h.stack = stack.New(stack.Options{
		NetworkProtocols:   []stack.NetworkProtocolFactory{ipv4.NewProtocol},
		TransportProtocols: []stack.TransportProtocolFactory{udp.NewProtocol, icmp.NewProtocol4},
		Clock:              h.clock,
		HandleLocal:        handleLocal,
	})
	h.link = channel.New(8192, uint32(mtu), "")
	must(h.stack.CreateNIC(nic, h.link))
	must(h.stack.AddProtocolAddress(nic, tcpip.ProtocolAddress{
		Protocol:          ipv4.ProtocolNumber,
		AddressWithPrefix: tcpip.AddressWithPrefix{Address: address("10.0.0.1"), PrefixLen: 24},
	}, stack.AddressProperties{}))
	h.stack.SetRouteTable([]tcpip.Route{{Destination: header.IPv4EmptySubnet, NIC: nic}})
	h.open(0, 7)
	return h
}

func (h *host) open(socket, port int) {
	endpoint, err := h.stack.NewEndpoint(udp.ProtocolNumber, ipv4.ProtocolNumber, &waiter.Queue{})
	must(err)
	endpoint.SocketOptions().SetBroadcast(true)
	endpoint.SocketOptions().SetReuseAddress(true)
	must(endpoint.Bind(tcpip.FullAddress{Port: uint16(port)}))
	h.sockets[socket] = endpoint
}

// Reports what left, and what the sockets have received that aren't held.
func (h *host) report() {
	for p := h.link.Read(); !p.IsNil(); p = h.link.Read() {
		buf := p.ToBuffer()
		fmt.Fprintf(out, "out %d %s\n", h.step, hexOf(buf.Flatten()))
		buf.Release()
		p.DecRef()
	}
	for socket := 0; socket < 64; socket++ {
		if h.sockets[socket] != nil && !h.held[socket] {
			h.read(socket, math.MaxInt)
		}
	}
}

// Reports up to this many of the datagrams that wait in a socket.
func (h *host) read(socket, count int) {
	for ; count > 0; count-- {
		var data bytes.Buffer
		got, err := h.sockets[socket].Read(&data, tcpip.ReadOptions{NeedRemoteAddr: true})
		if _, blocked := err.(*tcpip.ErrWouldBlock); blocked {
			return
		}
		if err != nil {
			fmt.Fprintf(out, "note socket %d: %s\nrefused %d\n", socket, strings.ReplaceAll(err.String(), "\n", " "), h.step)
			continue
		}
		fmt.Fprintf(out, "got %d %s %d %s", h.step, got.RemoteAddr.Addr, got.RemoteAddr.Port, hexOf(data.Bytes()))
		if socket != 0 {
			fmt.Fprintf(out, " %d", socket)
		}
		fmt.Fprintln(out)
	}
}

func (h *host) line(words []string) {
	switch words[0] {
	case "rx":
		p := stack.NewPacketBuffer(stack.PacketBufferOptions{Payload: bufferv2.MakeWithData(bytesOf(words[1]))})
		h.link.InjectInbound(ipv4.ProtocolNumber, p)
		p.DecRef()
		h.clock.RunImmediatelyScheduledJobs()
	case "wait":
		h.clock.Advance(time.Duration(number(words[1])) * time.Millisecond)
	case "socket":
		h.open(number(words[1]), number(words[2]))
	case "connect":
		to := tcpip.FullAddress{Addr: address(words[2]), Port: uint16(number(words[3]))}
		if err := h.sockets[number(words[1])].Connect(to); err != nil {
			fmt.Fprintf(out, "note %s\nrefused %d\n", err.String(), h.step)
		} else {
			h.connected[number(words[1])] = true
		}
	case "hold":
		h.held[number(words[1])] = true
	case "read":
		h.read(number(words[1]), number(words[2]))
	case "send":
		socket := number(words[1])
		options := tcpip.WriteOptions{} // without an address: a connected socket has its peer's
		if !h.connected[socket] {
			options.To = &tcpip.FullAddress{Addr: address(words[2]), Port: uint16(number(words[3]))}
		}
		if _, err := h.sockets[socket].Write(bytes.NewReader(bytesOf(words[4])), options); err != nil {
			fmt.Fprintf(out, "note %s\nrefused %d\n", err.String(), h.step)
		}
	}
	h.report()
}

// Plays a case. A panic is a crash of the stack, and the next case has a new one.
func play(lines [][]string) {
	defer func() {
		if fault := recover(); fault != nil {
			fmt.Fprintf(out, "crash %s\n", strings.ReplaceAll(fmt.Sprint(fault), "\n", " "))
		}
	}()
	mtu := 1500
	if len(lines) > 0 && lines[0][0] == "mtu" {
		mtu = number(lines[0][1])
		lines = lines[1:]
	}
	h := boot(mtu)
	defer h.stack.Close()
	for h.step = 0; h.step < len(lines); h.step++ {
		h.line(lines[h.step])
	}
}

func main() {
	in := bufio.NewScanner(os.Stdin)
	in.Buffer(make([]byte, 1<<20), 1<<20)
	var lines [][]string
	for in.Scan() {
		words := strings.Fields(in.Text())
		switch words[0] {
		case "hello":
			fmt.Fprintf(out, "stack gVisor %s\nhas out ping send mtu sockets connect hold\nend\n", version)
		case "case":
			lines = nil
			fmt.Fprintln(out, in.Text())
		case "end":
			play(lines)
			fmt.Fprintln(out, "end")
		default:
			lines = append(lines, words)
		}
		if words[0] == "hello" || words[0] == "end" {
			out.Flush()
		}
	}
}
