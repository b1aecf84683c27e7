namespace a { int b; }
using a::b;
