# 1 "größe€😀ö.cpp"
constexpr int a = 1;
