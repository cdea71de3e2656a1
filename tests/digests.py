#!/usr/bin/env python3
"""The digests that the program hash_vectors must print, by Python's hashlib.

  tests/digests.py > crates/hash_vectors/stdout
"""
import hashlib

# NIST's example values for SHA3-256: 0, 24, 448, 896 and 1600 bits.
PUBLISHED = [
    (b"", "a7ffc6f8bf1ed76651c14756a061d662f580ff4de43b49fa82d80a4b80f8434a"),
    (b"abc", "3a985da74fe225b2045c172d6bd390bd855f086e3e9d525b46bfe24511431532"),
    (b"abcdbcdecdefdefgefghfghighijhijkijkljklmklmnlmnomnopnopq",
     "41c0dba2a9d6240849100376a8235e2c82e1b9998a999e21db32dd97496d3376"),
    (b"abcdefghbcdefghicdefghijdefghijkefghijklfghijklmghijklmnhijklmnoijklmnopjklmnopqklmnopqrlmnopqrsmnopqrstnopqrstu",
     "916f6061fe879741ca6469b43971dfdb28b1a32dc36cb3254e812be27aad1d18"),
    (b"\xa3" * 200, "79f38adec5c20307a98ef76e8324afbfd46cfd81b22e3973c65fa1bd9de31787"),
]

pattern = bytes((5 * i + i // 3 + i // 7) % 256 for i in range(513))
for message, digest in PUBLISHED:
    assert hashlib.sha3_256(message).hexdigest() == digest
for message in [message for message, _ in PUBLISHED] + [pattern[:n] for n in [*range(301), 511, 512, 513]]:
    print(len(message), hashlib.sha3_256(message).hexdigest())
