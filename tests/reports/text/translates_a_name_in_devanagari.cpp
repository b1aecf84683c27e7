constexpr int आकार = 1;
