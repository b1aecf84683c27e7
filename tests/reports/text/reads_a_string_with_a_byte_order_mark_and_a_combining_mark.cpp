constexpr const char* a = "﻿ ö";
