namespace a {
namespace b {
constexpr int c = 1;
} // namespace b
namespace d { }
} // namespace a
