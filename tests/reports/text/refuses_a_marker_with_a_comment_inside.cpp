# 1 /* one */ "a.cpp"
constexpr int a = 1;
