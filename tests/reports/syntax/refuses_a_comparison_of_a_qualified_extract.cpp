int extract;
namespace m { int extract; }
int b = extract < 1; int c = m::extract < 1;
