constexpr int ﬁ = 1;
