enum class a : int { }; enum class b : int;
