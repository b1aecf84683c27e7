# 0 "point.cpp"
# 0 "<built-in>"
# 0 "<command-line>"
# 1 "/usr/include/stdc-predef.h" 1 3 4
# 0 "<command-line>" 2
# 1 "point.cpp"
# 1 "point.h" 1
       
namespace geometry {




struct Point {
    int x = 0;
    int y = 0;

    constexpr Point() {}
    constexpr Point(int x_, int y_) : x(x_), y(y_) {}
    constexpr int dot(const Point& other) const noexcept { return x * other.x + y * other.y; }
};

}
# 2 "point.cpp" 2





namespace geometry {
constexpr Point origin{};
constexpr Point unit{1, 1};
static_assert((unit.dot(origin)) == (0), "unit.dot(origin)");
}

int main()
{
    geometry::Point p = geometry::unit;
    p.x += 2;
    return p.dot({3, 4}) - 13;
}
