#pragma once
constexpr int a = 1;
