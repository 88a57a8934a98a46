; The byte shuffle of x86-64's SSSE3 (pshufb), for machines without it: byte k is the byte of the
; first argument at the place that the low four bits of byte k of the second say, or 0 if its high
; bit is set.
define internal <16 x i8> @shuffle_bytes(<16 x i8> %bytes, <16 x i8> %places) {
entry:
  br label %next

next:
  %k = phi i32 [ 0, %entry ], [ %after, %next ]
  %made = phi <16 x i8> [ zeroinitializer, %entry ], [ %more, %next ]
  %place = extractelement <16 x i8> %places, i32 %k
  %low = and i8 %place, 15
  %at = zext i8 %low to i32
  %byte = extractelement <16 x i8> %bytes, i32 %at
  %none = icmp slt i8 %place, 0
  %chosen = select i1 %none, i8 0, i8 %byte
  %more = insertelement <16 x i8> %made, i8 %chosen, i32 %k
  %after = add i32 %k, 1
  %done = icmp eq i32 %after, 16
  br i1 %done, label %end, label %next

end:
  ret <16 x i8> %more
}
