int f();
void g(int a, const char* b, int) noexcept;
constexpr inline const int& h(const int& a);
