/* The contracts of what portable/c/plain.c replaces: `sum_part` and `fold` of in_cksum, of its `sum_rest` what its
   callers use, `lanes_before` of pcb_table, and memmove. A compiler's addition that tells the overflow, and what a word
   in memory is, are taken for granted. */
#include "eva/addresses.h"

#include <stddef.h>

/*@ // the same remainder, and 0 only for 0: the fold is the same
    predicate counts_as(integer a, integer b) =
        0 <= a && 0 <= b && (a - b) % 65535 == 0 && (a == 0 <==> b == 0); */

/* The functions are proved by the lemmas about these sums, and the lemmas, in a run of their own, by the definitions.
   The number of a word in memory is words + 65535 * high. total is `swapped_sum` of in_cksum, from a position on. */
#ifdef LEMMAS
/*@ axiomatic Halves {
        logic integer half{L}(uint8_t *at) reads at[0 .. 1];
    }
    logic integer words{L}(uint8_t *at) = half(at) + half(at + 2);
    logic integer high{L}(uint8_t *at) = half(at + 2);
    logic integer total{L}(uint8_t *at, integer i, integer n) =
        i >= n ? 0 : i + 1 == n ? at[i] : half(at + i) + total(at, i + 2, n); */
#else
/*@ axiomatic Sums {
        logic integer words{L}(uint8_t *at) reads at[0 .. 3];
        logic integer high{L}(uint8_t *at) reads at[0 .. 3];
        logic integer total{L}(uint8_t *at, integer i, integer n) reads at[i .. n - 1];
    }
    logic integer half{L}(uint8_t *at) = at[0] + 256 * at[1]; */
#endif

/* With "j == i + 4" the prover would put in i + 4, and use a lemma without end. */
/*@ logic integer four{L}(uint8_t *at) = words(at) + words(at + 4) + words(at + 8) + words(at + 12);

    lemma of_none{L}: \forall uint8_t *at, integer i, n; n <= i ==> total(at, i, n) == 0;
    lemma of_one{L}: \forall uint8_t *at, integer i, n; i + 1 <= n <= i + 1 ==> total(at, i, n) == at[i];
    lemma of_two{L}: \forall uint8_t *at, integer i, j, n; i + 2 <= j <= i + 2 && j <= n ==>
        total(at, i, n) == half(at + i) + total(at, j, n);
    lemma of_four{L}: \forall uint8_t *at, integer i, j, n; i + 4 <= j <= i + 4 && j <= n ==>
        total(at, i, n) == words(at + i) + total(at, j, n);
    lemma of_sixteen{L}: \forall uint8_t *at, integer i, j, n; i + 16 <= j <= i + 16 && j <= n ==>
        total(at, i, n) == four(at + i) + total(at, j, n); */

#define __builtin_add_overflow add_overflow
/*@ requires \valid(to);
    assigns *to, \result \from a, b;
    ensures \result == 0 || \result == 1;
    ensures *to + 4294967296 * \result == a + b; */
static uint32_t add_overflow(uint32_t a, uint32_t b, uint32_t *to);

/*@ requires \valid_read(at + (0 .. 3));
    assigns \result \from at[0 .. 3];
    ensures \result == words(at) + 65535 * high(at) && 0 <= high(at) <= words(at); */
static uint32_t word_at(const uint8_t *at);

/*@ requires \valid_read(at + (0 .. 1));
    assigns \result \from at[0 .. 1];
    ensures \result == half(at); */
static uint32_t half_at(const uint8_t *at);

/*@ requires \valid(carry) && *carry <= 1;
    assigns *carry, \result \from a, b, *carry;
    ensures *carry <= 1;
    ensures \result + 4294967296 * *carry == a + b + \old(*carry); */
static uint32_t add_carrying(uint32_t a, uint32_t b, uint32_t *carry);

/*@ requires \valid(sum) && \valid_read(bytes + (0 .. 15)) && carry <= 1 && \separated(sum, bytes + (0 .. 15));
    assigns *sum, \result \from *sum, bytes[0 .. 15], carry;
    ensures \result <= 1;
    ensures counts_as(*sum + \result, \old(*sum) + carry + four(bytes)) && 0 <= four(bytes); */
static uint32_t add_words(uint32_t *sum, const uint8_t *bytes, uint32_t carry);

/*@ assigns \nothing;
    ensures \result == low + 4294967296 * high;
    ensures \forall integer b; counts_as(low + high, b) ==> counts_as(\result, b); */
static uint64_t joined(uint32_t low, uint32_t high);

/*@ requires \valid_read(bytes + (0 .. 15));
    assigns \result \from bytes[0 .. 15];
    ensures counts_as(\result, four(bytes)) && \result <= 17179869180; // 4 * (2 ^ 32 - 1)
 */
static uint64_t four_words(const uint8_t *bytes);

/*@ requires \valid(bytes) && \valid(n) && *n <= 65536 && \valid_read(*bytes + (0 .. *n - 1));
    requires \separated(bytes, n, *bytes + (0 .. *n - 1));
    assigns *bytes, *n, \result \from *bytes, *n, (*bytes)[0 .. *n - 1];
    ensures *n < 16 && *n <= \old(*n) && *bytes == \old(*bytes) + (\old(*n) - *n);
    ensures \result <= 4294967296 * \old(*n) + 4294967295;
    ensures counts_as(\result, total(\old(*bytes), 0, \old(*n)) - total(\old(*bytes), \old(*n) - *n, \old(*n))); */
static uint64_t sum_words(const uint8_t **bytes, uint32_t *n);

/*@ requires len <= 65536 && \valid_read(bytes + (0 .. len - 1));
    assigns \result \from bytes[0 .. len - 1], len;
    ensures counts_as(\result, total(bytes, 0, len)) && \result < 2251799813685248; // 2 ^ 51
    ensures len < 32 ==> \result < 1125899906842624; // 2 ^ 50
 */
uint64_t bsdudp_plain_sum(const uint8_t *bytes, uint64_t len);

/*@ requires \valid((char *)to) && \valid_read((char *)from); // also if len is 0, as for memmove
    requires \valid((char *)to + (0 .. len - 1)) && \valid_read((char *)from + (0 .. len - 1));
    assigns ((char *)to)[0 .. len - 1] \from ((char *)from)[0 .. len - 1];
    assigns \result \from to;
    ensures \result == to;
    ensures \forall integer i; 0 <= i < len ==> ((char *)to)[i] == \old(((char *)from)[i]); */
void *bsdmove(void *to, const void *from, size_t len);

/*@ assigns \nothing;
    ensures \exists integer k; sum == \result + 65535 * k;
    ensures \result == 0 <==> sum == 0; */
uint16_t bsdudp_plain_fold(uint64_t sum);

/*@ requires at + 16 <= len < 4294967296 && \valid_read(ports + (0 .. len - 1));
    assigns \nothing;
    ensures \result <= 16 && \forall integer i; at <= i < at + \result ==> ports[i] != port;
    ensures \result < 16 ==> ports[at + \result] == port; */
uint64_t bsdudp_plain_before(const uint16_t *ports, uint64_t len, uint64_t at, uint16_t port);
