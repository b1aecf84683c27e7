constexpr int a = 21474836470;
