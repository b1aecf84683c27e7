#include <vector>
constexpr int a = 1;
