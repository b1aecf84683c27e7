// one \
constexpr int a = 1;
