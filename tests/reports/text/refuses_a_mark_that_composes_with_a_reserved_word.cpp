constexpr inté a = 1;
