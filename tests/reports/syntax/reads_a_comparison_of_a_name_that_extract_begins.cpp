constexpr bool b = extract::a < c;
