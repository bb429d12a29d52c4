#!/usr/bin/env python3
"""The quarter wave by an outside cosine: entry j is the whole number nearest to 2^30 cos(2 pi j / 4096), j = 0 .. 1024.

    python3 tests/expect_quarter_wave.py > crates/quarter_wave_test/stdout

mpmath's multiple-precision cosine, at 60 digits. No value lies near a tie, which is checked.
"""
from mpmath import mp, mpf, cos, pi, floor

mp.dps = 60
for j in range(1025):
    exact = mpf(2) ** 30 * cos(2 * pi * j / 4096)
    nearest = int(floor(exact + mpf(1) / 2))
    assert abs(exact - nearest) < mpf("0.4999"), j
    print(nearest)
