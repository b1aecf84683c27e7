# ١ "a.cpp"
constexpr int a = 1;
