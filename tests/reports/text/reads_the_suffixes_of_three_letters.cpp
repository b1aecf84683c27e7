1ull 1uLL 1Ull 1ULL 1llu 1llU 1LLu 1LLU
