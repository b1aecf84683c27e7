1ll 1LL 1ul 1uL 1Ul 1UL 1lu 1lU 1Lu 1LU
