/* é€😀 */ 	#define N
