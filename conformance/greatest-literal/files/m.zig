const big = 170141183460469231731687303715884105727;
export fn f() u32 { return if (big > 0) 1 else 2; }