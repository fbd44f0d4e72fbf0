"""portable/board/light.c, the smallest program with CoAP, on a Cortex-M3 in QEMU, with Linux as its peer."""
import pytest

from tests.cases import TOP
from tests.device.test_page import shell
from tests.made import made

pytestmark = [pytest.mark.slow, pytest.mark.needs("rt", "wasm-opt", "cc", "arm-none-eabi", "qemu-arm")]
START = """ip tuntap add dev tap0 mode tap
ip addr add 10.0.0.2/24 dev tap0
ip link set tap0 up
qemu-system-arm -M mps2-an385 -display none -monitor none -serial null \\
    -nic tap,ifname=tap0,script=no,downscript=no -kernel light.elf < /dev/null &
"""
CLIENT = "coap-client-notls -m"


@pytest.mark.needs("netns", "tun", "ip", "ping", "coap-client")
def test_a_light_is_switched_and_read(core_for, tmp_path):
    made(TOP / "portable/board/build", core_for("cortex-m3"), tmp_path)
    asked = [
        f"{CLIENT} get coap://10.0.0.1/.well-known/core",
        f"{CLIENT} get coap://10.0.0.1/led",
        f"{CLIENT} put -e 1 coap://10.0.0.1/led",
        f"{CLIENT} get coap://10.0.0.1/led",
        f"{CLIENT} put -e 2 coap://10.0.0.1/led 2>&1",
        f"{CLIENT} get coap://10.0.0.1/ram 2>&1",
        f"{CLIENT} put -e {'1' * 1000} coap://10.0.0.1/led 2>&1",  # in one message
        "ping -c 1 -W 5 10.0.0.1 > /dev/null && echo pinged",
    ]
    said = shell(START + "\n".join(asked) + "\nkill $!\n", tmp_path, "unshare", "-n").splitlines()
    assert said == ["</led>;ct=0", "0", "1", "4.00", "4.04", "4.00", "pinged"]
