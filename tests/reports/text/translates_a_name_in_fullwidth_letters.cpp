constexpr int ＡＢ = 1;
