enum a { b, c, }; enum d { e,, f };
