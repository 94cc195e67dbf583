; A table, a variable, calls to another object; for llc.
declare i32 @twice(i32)
@shared = external dso_local global i32
@total = dso_local global i32 32
@rows = private constant [4 x i32] [i32 3, i32 4, i32 5, i32 6]

define i32 @answer() nounwind {
entry:
  br label %next
next:
  %k = phi i64 [ 0, %entry ], [ %after, %next ]
  %place = getelementptr [4 x i32], [4 x i32]* @rows, i64 0, i64 %k
  %row = load i32, i32* %place
  %old = load i32, i32* @total
  %new = add i32 %old, %row
  store i32 %new, i32* @total
  %after = add i64 %k, 1
  %more = icmp ne i64 %after, 4
  br i1 %more, label %next, label %end
end:
  %sum = load i32, i32* @total
  %double = call i32 @twice(i32 %sum)
  %from = load i32, i32* @shared
  %less = sub i32 %double, %from
  %result = sub i32 %less, 32
  ret i32 %result
}
