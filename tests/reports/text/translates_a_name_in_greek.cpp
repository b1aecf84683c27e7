constexpr int μέγεθος = 1;
