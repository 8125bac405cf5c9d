/* Times plain C for the same calls as main.rt.in, in the same way: `holds`, a reading of all octets by memchr
 * (`read`), a decoder of headers that walks the TLVs (`decode`), and HMAC over OpenSSL's MD5 (`digest`). The octets come from standard input. */
#define OPENSSL_SUPPRESS_DEPRECATED
#include <openssl/md5.h>
#include <stdbool.h>
#include <stddef.h>
#include <stdint.h>
#include <stdio.h>
#include <string.h>
#include <time.h>

enum { ROUNDS = 20, CALLS = 5000, BLOCK = 5802, MOST = 65535 };

__attribute__((noipa)) static bool holds(const uint8_t *octets, size_t count)
{
	uint32_t plain = 0, running = 0;

	while (count > 0) {
		size_t block = count < BLOCK ? count : BLOCK;

		count -= block;
		for (const uint8_t *end = octets + block; octets < end; octets++) {
			plain += *octets;
			running += plain;
		}
		plain %= 255;
		running %= 255;
	}
	return plain == 0 && running == 0;
}

__attribute__((noipa)) static void digest_of(const uint8_t *key, size_t key_count, const uint8_t *octets, size_t count, uint8_t *into)
{
	uint8_t block[64] = {0}, inner[64], outer[64];
	MD5_CTX context;

	if (key_count > 64)
		MD5(key, key_count, block);
	else
		memcpy(block, key, key_count);
	for (size_t at = 0; at < 64; at++) {
		inner[at] = block[at] ^ 0x36;
		outer[at] = block[at] ^ 0x5c;
	}
	MD5_Init(&context);
	MD5_Update(&context, inner, 64);
	MD5_Update(&context, octets, count);
	MD5_Final(into, &context);
	MD5_Init(&context);
	MD5_Update(&context, outer, 64);
	MD5_Update(&context, into, 16);
	MD5_Final(into, &context);
}

struct pdu {
	int level, circuit_type, priority, circuit;
	uint8_t source[8], id[8], end[8];
	uint32_t holding, lifetime, number, checksum, flags, length, tlvs;
};

static uint32_t two(const uint8_t *octets)
{
	return (uint32_t)octets[0] << 8 | octets[1];
}

/* The first test of a PDU that fails, or 0. */
__attribute__((noipa)) static int decode(const uint8_t *octets, size_t count, struct pdu *pdu)
{
	size_t header, at;

	if (count < 8)
		return 1;
	if (octets[0] != 0x83)
		return 2;
	if (octets[2] != 1)
		return 3;
	if (octets[3] != 0 && octets[3] != 6)
		return 4;
	switch (octets[4] & 31) {
	case 15: case 16: header = 27; at = 17; break;
	case 17: header = 20; at = 17; break;
	case 18: case 20: header = 27; at = 8; break;
	case 24: case 25: header = 33; at = 8; break;
	case 26: case 27: header = 17; at = 8; break;
	default: return 5;
	}
	if (octets[5] != 1)
		return 6;
	if (octets[7] != 0 && octets[7] != 3)
		return 7;
	if (octets[1] != header)
		return 8;
	if (count < header)
		return 9;
	if (at == 17 && (octets[8] & 3) == 0)
		return 10;
	pdu->length = two(octets + at);
	if (pdu->length < header || pdu->length > count)
		return 11;
	for (size_t place = header; place < pdu->length; place += 2 + octets[place + 1])
		if (pdu->length - place < 2 || pdu->length - place < 2u + octets[place + 1])
			return 12;
	pdu->tlvs = (uint32_t)(pdu->length - header);
	pdu->level = (octets[4] & 31) == 18 || (octets[4] & 31) == 15 ? 1 : 2;
	switch (octets[4] & 31) {
	case 15: case 16: case 17:
		pdu->circuit_type = octets[8] & 3;
		memcpy(pdu->source, octets + 9, 6);
		pdu->holding = two(octets + 15);
		if (at == 17 && header == 27) {
			pdu->priority = octets[19] & 127;
			memcpy(pdu->id, octets + 20, 7);
		} else {
			pdu->circuit = octets[19];
		}
		break;
	case 18: case 20:
		pdu->lifetime = two(octets + 10);
		memcpy(pdu->id, octets + 12, 8);
		pdu->number = two(octets + 20) << 16 | two(octets + 22);
		pdu->checksum = two(octets + 24);
		pdu->flags = octets[26];
		break;
	default:
		memcpy(pdu->source, octets + 10, 7);
		if (header == 33) {
			memcpy(pdu->id, octets + 17, 8);
			memcpy(pdu->end, octets + 25, 8);
		}
	}
	return 0;
}

__attribute__((noipa)) static uint64_t run(const char *word, uint8_t *octets, size_t count)
{
	uint64_t sum = 0;

	for (size_t call = 0; call < CALLS; call++) {
		if (strcmp(word, "holds") == 0) {
			octets[call % count]++;
			sum += holds(octets, count);
		} else if (strcmp(word, "read") == 0) {
			const uint8_t *rest = octets, *end = octets + count;

			/* An octet that isn't there, so that all are read. */
			sum += memchr(rest, 0xfe, (size_t)(end - rest)) != NULL;
		} else if (strcmp(word, "decode") == 0) {
			struct pdu pdu;

			octets[23] = (uint8_t)(call % 256);
			if (decode(octets, count, &pdu) == 0)
				sum += pdu.lifetime + (uint64_t)pdu.number + pdu.tlvs + pdu.length;
		} else {
			uint8_t key[16], digest[16];

			memset(key, (int)(call % 256), sizeof key);
			digest_of(key, sizeof key, octets, count, digest);
			sum += digest[0];
		}
	}
	return sum;
}

static uint64_t nanoseconds(void)
{
	struct timespec now;

	clock_gettime(CLOCK_MONOTONIC, &now);
	return (uint64_t)now.tv_sec * 1000000000 + (uint64_t)now.tv_nsec;
}

int main(int count_of_words, char **words)
{
	static uint8_t octets[MOST];
	size_t count = fread(octets, 1, sizeof octets, stdin);
	uint64_t least = UINT64_MAX, sum = 0;

	if (count_of_words != 2 || count == 0)
		return 1;
	for (int round = 0; round < ROUNDS; round++) {
		uint64_t start = nanoseconds();

		sum += run(words[1], octets, count);
		uint64_t spent = nanoseconds() - start;

		if (spent < least)
			least = spent;
	}
	printf("%llu %llu\n", (unsigned long long)(least / (CALLS / 1000)), (unsigned long long)sum);
	return 0;
}
