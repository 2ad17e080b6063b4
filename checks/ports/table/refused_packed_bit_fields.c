#pragma pack(push, 2)
struct __attribute__((packed)) a { unsigned x : 12; unsigned y : 7; };
struct b { char x : 4; __attribute__((aligned(16))) char y : 4; };
#pragma pack(pop)
int main(void) { return sizeof(struct a) + sizeof(struct b); }
/* refused 2 bit-fields that `packed` and `#pragma pack` speak of */
/* refused 3 a bit-field with an alignment of its own in a packed struct */
