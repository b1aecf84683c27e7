int b = m::extract<std::vector<s> >(a); int c = m::extract<std::vector<s>>(a);
