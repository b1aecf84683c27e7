#1"a.cpp"3
constexpr int a = 1;
