; What x86 does in one instruction, which WebAssembly lacks: each lane is the byte in the place that stands there, or 0 where the place is 128 or more.
define internal <16 x i8> @shuffle_bytes(<16 x i8> %bytes, <16 x i8> %places) {
start:
  br label %lane

lane:
  %at = phi i32 [ 0, %start ], [ %next, %lane ]
  %made = phi <16 x i8> [ zeroinitializer, %start ], [ %more, %lane ]
  %place = extractelement <16 x i8> %places, i32 %at
  %low = and i8 %place, 15
  %byte = extractelement <16 x i8> %bytes, i8 %low
  %is_out = icmp slt i8 %place, 0
  %kept = select i1 %is_out, i8 0, i8 %byte
  %more = insertelement <16 x i8> %made, i8 %kept, i32 %at
  %next = add i32 %at, 1
  %is_last = icmp eq i32 %next, 16
  br i1 %is_last, label %end, label %lane

end:
  ret <16 x i8> %more
}
