1u 1U 1l 1L
