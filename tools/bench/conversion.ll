; Appended to the library's own module by tools/bench/bench: the crate `number`'s from_integer in a loop, compiled into it as the
; library compiles it into its callers.

define void @convert_all(ptr %integers, ptr %numbers, i64 %n) {
start:
  br label %turn
turn:
  %i = phi i64 [ 0, %start ], [ %next, %turn ]
  %from = getelementptr i64, ptr %integers, i64 %i
  %integer = load i64, ptr %from
  %number = call double @"number::from_integer"(i64 %integer)
  %to = getelementptr double, ptr %numbers, i64 %i
  store double %number, ptr %to
  %next = add i64 %i, 1
  %more = icmp ult i64 %next, %n
  br i1 %more, label %turn, label %end
end:
  ret void
}
