; let: nothing else
()
(let)
(let ([x alpha] [y beta]))
(let ([x alpha] [y beta]) (gamma x))
(let ([x alpha] [y beta]) (gamma x) delta)

; let: a comment at the line's end
(; c
)
(; c
let)
(let ; c
)
(; c
let ([x alpha] [y beta]))
(let ; c
([x alpha] [y beta]))
(let ([x alpha] [y beta]) ; c
)
(; c
let ([x alpha] [y beta]) (gamma x))
(let ; c
([x alpha] [y beta]) (gamma x))
(let ([x alpha] [y beta]) ; c
(gamma x))
(let ([x alpha] [y beta]) (gamma x) ; c
)
(; c
let ([x alpha] [y beta]) (gamma x) delta)
(let ; c
([x alpha] [y beta]) (gamma x) delta)
(let ([x alpha] [y beta]) ; c
(gamma x) delta)
(let ([x alpha] [y beta]) (gamma x) ; c
delta)
(let ([x alpha] [y beta]) (gamma x) delta ; c
)

; let: a comment on a line of its own
(
; c
)
(
; c
let)
(let
; c
)
(
; c
let ([x alpha] [y beta]))
(let
; c
([x alpha] [y beta]))
(let ([x alpha] [y beta])
; c
)
(
; c
let ([x alpha] [y beta]) (gamma x))
(let
; c
([x alpha] [y beta]) (gamma x))
(let ([x alpha] [y beta])
; c
(gamma x))
(let ([x alpha] [y beta]) (gamma x)
; c
)
(
; c
let ([x alpha] [y beta]) (gamma x) delta)
(let
; c
([x alpha] [y beta]) (gamma x) delta)
(let ([x alpha] [y beta])
; c
(gamma x) delta)
(let ([x alpha] [y beta]) (gamma x)
; c
delta)
(let ([x alpha] [y beta]) (gamma x) delta
; c
)

; let: a block comment
(#| c |#)
(#| c |# let)
(let #| c |#)
(#| c |# let ([x alpha] [y beta]))
(let #| c |# ([x alpha] [y beta]))
(let ([x alpha] [y beta]) #| c |#)
(#| c |# let ([x alpha] [y beta]) (gamma x))
(let #| c |# ([x alpha] [y beta]) (gamma x))
(let ([x alpha] [y beta]) #| c |# (gamma x))
(let ([x alpha] [y beta]) (gamma x) #| c |#)
(#| c |# let ([x alpha] [y beta]) (gamma x) delta)
(let #| c |# ([x alpha] [y beta]) (gamma x) delta)
(let ([x alpha] [y beta]) #| c |# (gamma x) delta)
(let ([x alpha] [y beta]) (gamma x) #| c |# delta)
(let ([x alpha] [y beta]) (gamma x) delta #| c |#)

; let: a datum comment
(#;(x y))
(#;(x y) let)
(let #;(x y))
(#;(x y) let ([x alpha] [y beta]))
(let #;(x y) ([x alpha] [y beta]))
(let ([x alpha] [y beta]) #;(x y))
(#;(x y) let ([x alpha] [y beta]) (gamma x))
(let #;(x y) ([x alpha] [y beta]) (gamma x))
(let ([x alpha] [y beta]) #;(x y) (gamma x))
(let ([x alpha] [y beta]) (gamma x) #;(x y))
(#;(x y) let ([x alpha] [y beta]) (gamma x) delta)
(let #;(x y) ([x alpha] [y beta]) (gamma x) delta)
(let ([x alpha] [y beta]) #;(x y) (gamma x) delta)
(let ([x alpha] [y beta]) (gamma x) #;(x y) delta)
(let ([x alpha] [y beta]) (gamma x) delta #;(x y))

; let: a keyword
(#:key)
(#:key let)
(let #:key)
(#:key let ([x alpha] [y beta]))
(let #:key ([x alpha] [y beta]))
(let ([x alpha] [y beta]) #:key)
(#:key let ([x alpha] [y beta]) (gamma x))
(let #:key ([x alpha] [y beta]) (gamma x))
(let ([x alpha] [y beta]) #:key (gamma x))
(let ([x alpha] [y beta]) (gamma x) #:key)
(#:key let ([x alpha] [y beta]) (gamma x) delta)
(let #:key ([x alpha] [y beta]) (gamma x) delta)
(let ([x alpha] [y beta]) #:key (gamma x) delta)
(let ([x alpha] [y beta]) (gamma x) #:key delta)
(let ([x alpha] [y beta]) (gamma x) delta #:key)

; let: a dot
(let . ([x alpha] [y beta]))
(let ([x alpha] [y beta]) . (gamma x))
(let ([x alpha] [y beta]) (gamma x) . delta)
(let . ([x alpha] [y beta]) . (gamma x))
(let . ([x alpha] [y beta]) . (gamma x) delta)
(let ([x alpha] [y beta]) . (gamma x) . delta)

; let: a here string
(#<<E
x
E
)
(#<<E
x
E
([x alpha] [y beta]))
(let #<<E
x
E
)
(#<<E
x
E
([x alpha] [y beta]) (gamma x))
(let #<<E
x
E
(gamma x))
(let ([x alpha] [y beta]) #<<E
x
E
)
(#<<E
x
E
([x alpha] [y beta]) (gamma x) delta)
(let #<<E
x
E
(gamma x) delta)
(let ([x alpha] [y beta]) #<<E
x
E
delta)
(let ([x alpha] [y beta]) (gamma x) #<<E
x
E
)

; let: a string of two lines
("x
  y")
("x
  y" ([x alpha] [y beta]))
(let "x
  y")
("x
  y" ([x alpha] [y beta]) (gamma x))
(let "x
  y" (gamma x))
(let ([x alpha] [y beta]) "x
  y")
("x
  y" ([x alpha] [y beta]) (gamma x) delta)
(let "x
  y" (gamma x) delta)
(let ([x alpha] [y beta]) "x
  y" delta)
(let ([x alpha] [y beta]) (gamma x) "x
  y")

; for/fold: nothing else
()
(for/fold)
(for/fold ([x 1]))
(for/fold ([x 1]) ([y (alpha beta)]))
(for/fold ([x 1]) ([y (alpha beta)]) (gamma x))

; for/fold: a comment at the line's end
(; c
)
(; c
for/fold)
(for/fold ; c
)
(; c
for/fold ([x 1]))
(for/fold ; c
([x 1]))
(for/fold ([x 1]) ; c
)
(; c
for/fold ([x 1]) ([y (alpha beta)]))
(for/fold ; c
([x 1]) ([y (alpha beta)]))
(for/fold ([x 1]) ; c
([y (alpha beta)]))
(for/fold ([x 1]) ([y (alpha beta)]) ; c
)
(; c
for/fold ([x 1]) ([y (alpha beta)]) (gamma x))
(for/fold ; c
([x 1]) ([y (alpha beta)]) (gamma x))
(for/fold ([x 1]) ; c
([y (alpha beta)]) (gamma x))
(for/fold ([x 1]) ([y (alpha beta)]) ; c
(gamma x))
(for/fold ([x 1]) ([y (alpha beta)]) (gamma x) ; c
)

; for/fold: a comment on a line of its own
(
; c
)
(
; c
for/fold)
(for/fold
; c
)
(
; c
for/fold ([x 1]))
(for/fold
; c
([x 1]))
(for/fold ([x 1])
; c
)
(
; c
for/fold ([x 1]) ([y (alpha beta)]))
(for/fold
; c
([x 1]) ([y (alpha beta)]))
(for/fold ([x 1])
; c
([y (alpha beta)]))
(for/fold ([x 1]) ([y (alpha beta)])
; c
)
(
; c
for/fold ([x 1]) ([y (alpha beta)]) (gamma x))
(for/fold
; c
([x 1]) ([y (alpha beta)]) (gamma x))
(for/fold ([x 1])
; c
([y (alpha beta)]) (gamma x))
(for/fold ([x 1]) ([y (alpha beta)])
; c
(gamma x))
(for/fold ([x 1]) ([y (alpha beta)]) (gamma x)
; c
)

; for/fold: a block comment
(#| c |#)
(#| c |# for/fold)
(for/fold #| c |#)
(#| c |# for/fold ([x 1]))
(for/fold #| c |# ([x 1]))
(for/fold ([x 1]) #| c |#)
(#| c |# for/fold ([x 1]) ([y (alpha beta)]))
(for/fold #| c |# ([x 1]) ([y (alpha beta)]))
(for/fold ([x 1]) #| c |# ([y (alpha beta)]))
(for/fold ([x 1]) ([y (alpha beta)]) #| c |#)
(#| c |# for/fold ([x 1]) ([y (alpha beta)]) (gamma x))
(for/fold #| c |# ([x 1]) ([y (alpha beta)]) (gamma x))
(for/fold ([x 1]) #| c |# ([y (alpha beta)]) (gamma x))
(for/fold ([x 1]) ([y (alpha beta)]) #| c |# (gamma x))
(for/fold ([x 1]) ([y (alpha beta)]) (gamma x) #| c |#)

; for/fold: a datum comment
(#;(x y))
(#;(x y) for/fold)
(for/fold #;(x y))
(#;(x y) for/fold ([x 1]))
(for/fold #;(x y) ([x 1]))
(for/fold ([x 1]) #;(x y))
(#;(x y) for/fold ([x 1]) ([y (alpha beta)]))
(for/fold #;(x y) ([x 1]) ([y (alpha beta)]))
(for/fold ([x 1]) #;(x y) ([y (alpha beta)]))
(for/fold ([x 1]) ([y (alpha beta)]) #;(x y))
(#;(x y) for/fold ([x 1]) ([y (alpha beta)]) (gamma x))
(for/fold #;(x y) ([x 1]) ([y (alpha beta)]) (gamma x))
(for/fold ([x 1]) #;(x y) ([y (alpha beta)]) (gamma x))
(for/fold ([x 1]) ([y (alpha beta)]) #;(x y) (gamma x))
(for/fold ([x 1]) ([y (alpha beta)]) (gamma x) #;(x y))

; for/fold: a keyword
(#:key)
(#:key for/fold)
(for/fold #:key)
(#:key for/fold ([x 1]))
(for/fold #:key ([x 1]))
(for/fold ([x 1]) #:key)
(#:key for/fold ([x 1]) ([y (alpha beta)]))
(for/fold #:key ([x 1]) ([y (alpha beta)]))
(for/fold ([x 1]) #:key ([y (alpha beta)]))
(for/fold ([x 1]) ([y (alpha beta)]) #:key)
(#:key for/fold ([x 1]) ([y (alpha beta)]) (gamma x))
(for/fold #:key ([x 1]) ([y (alpha beta)]) (gamma x))
(for/fold ([x 1]) #:key ([y (alpha beta)]) (gamma x))
(for/fold ([x 1]) ([y (alpha beta)]) #:key (gamma x))
(for/fold ([x 1]) ([y (alpha beta)]) (gamma x) #:key)

; for/fold: a dot
(for/fold . ([x 1]))
(for/fold ([x 1]) . ([y (alpha beta)]))
(for/fold ([x 1]) ([y (alpha beta)]) . (gamma x))
(for/fold . ([x 1]) . ([y (alpha beta)]))
(for/fold . ([x 1]) . ([y (alpha beta)]) (gamma x))
(for/fold ([x 1]) . ([y (alpha beta)]) . (gamma x))

; for/fold: a here string
(#<<E
x
E
)
(#<<E
x
E
([x 1]))
(for/fold #<<E
x
E
)
(#<<E
x
E
([x 1]) ([y (alpha beta)]))
(for/fold #<<E
x
E
([y (alpha beta)]))
(for/fold ([x 1]) #<<E
x
E
)
(#<<E
x
E
([x 1]) ([y (alpha beta)]) (gamma x))
(for/fold #<<E
x
E
([y (alpha beta)]) (gamma x))
(for/fold ([x 1]) #<<E
x
E
(gamma x))
(for/fold ([x 1]) ([y (alpha beta)]) #<<E
x
E
)

; for/fold: a string of two lines
("x
  y")
("x
  y" ([x 1]))
(for/fold "x
  y")
("x
  y" ([x 1]) ([y (alpha beta)]))
(for/fold "x
  y" ([y (alpha beta)]))
(for/fold ([x 1]) "x
  y")
("x
  y" ([x 1]) ([y (alpha beta)]) (gamma x))
(for/fold "x
  y" ([y (alpha beta)]) (gamma x))
(for/fold ([x 1]) "x
  y" (gamma x))
(for/fold ([x 1]) ([y (alpha beta)]) "x
  y")
