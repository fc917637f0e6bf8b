; as many slots as stand here
(let)
(let ([u (gamma delta)] [v w]))
(let ([u (gamma delta)] [v w]) (theta x))
(let ([u (gamma delta)] [v w]) (theta x) iota)
[parameterize]
[parameterize ([u (gamma delta)] [v w])]
[parameterize ([u (gamma delta)] [v w]) (theta x)]
[parameterize ([u (gamma delta)] [v w]) (theta x) iota]
(for/fold)
(for/fold ([y (alpha beta)] [z 2]))
(for/fold ([y (alpha beta)] [z 2]) ([u (gamma delta)] [v w]))
(for/fold ([y (alpha beta)] [z 2]) ([u (gamma delta)] [v w]) (theta x))
(for/fold ([y (alpha beta)] [z 2]) ([u (gamma delta)] [v w]) (theta x) iota)
(bindings-3)
(bindings-3 ([x 1]))
(bindings-3 ([x 1]) ([y (alpha beta)] [z 2]))
(bindings-3 ([x 1]) ([y (alpha beta)] [z 2]) ([u (gamma delta)] [v w]))
(bindings-3 ([x 1]) ([y (alpha beta)] [z 2]) ([u (gamma delta)] [v w]) (theta x))
(bindings-3 ([x 1]) ([y (alpha beta)] [z 2]) ([u (gamma delta)] [v w]) (theta x) iota)
(bindings-flat)
(bindings-flat ([u (gamma delta)] [v w]))
(bindings-flat ([u (gamma delta)] [v w]) (theta x))
(bindings-flat ([u (gamma delta)] [v w]) (theta x) iota)
(let loop)
(let loop ([u (gamma delta)] [v w]))
(let loop ([u (gamma delta)] [v w]) (theta x))
(let loop ([u (gamma delta)] [v w]) (theta x) iota)

; a comment at the line's end
(; c
let ([u (gamma delta)] [v w]) (theta x))
(for/fold ; c
([y (alpha beta)] [z 2]) ([u (gamma delta)] [v w]) (theta x))
(bindings-flat ([u (gamma delta)] [v w]) ; c
(theta x))
(let ([u (gamma delta)] [v w]) (theta x) ; c
iota)
(for/fold ([y (alpha beta)] [z 2]) ([u (gamma delta)] [v w]) (theta x) ; c
)

; a comment of its own line
[
; c
parameterize ([u (gamma delta)] [v w]) (theta x)]
(bindings-3 ([x 1])
; c
([y (alpha beta)] [z 2]) ([u (gamma delta)] [v w]) (theta x))
(let loop ([u (gamma delta)] [v w])
; c
(theta x) iota)
[parameterize ([u (gamma delta)] [v w]) (theta x)
; c
iota]
(bindings-3 ([x 1]) ([y (alpha beta)] [z 2]) ([u (gamma delta)] [v w]) (theta x) iota
; c
)

; a block comment
(#| c |# for/fold ([y (alpha beta)] [z 2]) ([u (gamma delta)] [v w]) (theta x))
(bindings-flat #| c |# ([u (gamma delta)] [v w]) (theta x))
(let ([u (gamma delta)] [v w]) #| c |# (theta x))
(for/fold ([y (alpha beta)] [z 2]) ([u (gamma delta)] [v w]) (theta x) #| c |# iota)
(bindings-flat ([u (gamma delta)] [v w]) #| c |#)

; a block comment of two lines
(#| c
 d |# bindings-3 ([x 1]) ([y (alpha beta)] [z 2]) ([u (gamma delta)] [v w]) (theta x))
(let loop #| c
 d |# ([u (gamma delta)] [v w]) (theta x))
[parameterize ([u (gamma delta)] [v w]) #| c
 d |# (theta x) iota]
(bindings-3 ([x 1]) ([y (alpha beta)] [z 2]) ([u (gamma delta)] [v w]) (theta x) #| c
 d |# iota)
(let loop ([u (gamma delta)] [v w]) (theta x) #| c
 d |#)

; a datum comment
(#;(x y) bindings-flat ([u (gamma delta)] [v w]) (theta x))
(let #;(x y) ([u (gamma delta)] [v w]) (theta x))
(for/fold ([y (alpha beta)] [z 2]) ([u (gamma delta)] [v w]) #;(x y) (theta x))
(bindings-flat ([u (gamma delta)] [v w]) (theta x) #;(x y) iota)
(let ([u (gamma delta)] [v w]) (theta x) iota #;(x y))

; a keyword and its datum
(#:key let loop ([u (gamma delta)] [v w]) (theta x))
[parameterize #:key ([u (gamma delta)] [v w]) (theta x)]
(bindings-3 ([x 1]) ([y (alpha beta)] [z 2]) ([u (gamma delta)] [v w]) #:key (theta x) iota)
(let loop ([u (gamma delta)] [v w]) (theta x) #:key iota)
[parameterize ([u (gamma delta)] [v w]) #:last]

; two keywords
[#:one #:two parameterize ([u (gamma delta)] [v w]) (theta x)]
(bindings-3 #:one #:two ([x 1]) ([y (alpha beta)] [z 2]) ([u (gamma delta)] [v w]) (theta x))
(let loop ([u (gamma delta)] [v w]) #:one #:two (theta x))
[parameterize ([u (gamma delta)] [v w]) (theta x) #:one #:two iota]
(bindings-3 ([x 1]) ([y (alpha beta)] [z 2]) ([u (gamma delta)] [v w]) (theta x) #:one #:two)

; a here string
(#<<E
x
E
([y (alpha beta)] [z 2]) ([u (gamma delta)] [v w]) (theta x))
(bindings-flat #<<E
x
E
(theta x))
(let ([u (gamma delta)] [v w]) #<<E
x
E
iota)
(for/fold ([y (alpha beta)] [z 2]) ([u (gamma delta)] [v w]) (theta x) #<<E
x
E
)
(bindings-flat ([u (gamma delta)] [v w]) (theta x) iota #<<E
x
E
)

; a string of two lines
("x
  y" ([x 1]) ([y (alpha beta)] [z 2]) ([u (gamma delta)] [v w]) (theta x))
(let "x
  y" ([u (gamma delta)] [v w]) (theta x))
[parameterize ([u (gamma delta)] [v w]) "x
  y"]
(bindings-3 ([x 1]) ([y (alpha beta)] [z 2]) ([u (gamma delta)] [v w]) (theta x) "x
  y")
(let loop ([u (gamma delta)] [v w]) "x
  y")

; a blank line
(

bindings-flat ([u (gamma delta)] [v w]) (theta x))
(let

([u (gamma delta)] [v w]) (theta x))
(for/fold ([y (alpha beta)] [z 2]) ([u (gamma delta)] [v w])

(theta x) iota)
(bindings-flat ([u (gamma delta)] [v w]) (theta x)

iota)
(let ([u (gamma delta)] [v w]) (theta x)

)

; two comments
(; c
; d
let loop ([u (gamma delta)] [v w]) (theta x))
[parameterize ; c
; d
([u (gamma delta)] [v w]) (theta x)]
(bindings-3 ([x 1]) ([y (alpha beta)] [z 2]) ([u (gamma delta)] [v w]) ; c
; d
(theta x))
(let loop ([u (gamma delta)] [v w]) (theta x) ; c
; d
iota)
[parameterize ([u (gamma delta)] [v w]) (theta x) iota ; c
; d
]

; in the bindings
(let ([x 1] ; c
[y 2]) alpha)
(let ([x 1]
; c
[y 2]) alpha)
(let ([x ; c
1] [y 2]) alpha)
(let (#| c |# [x 1] #;[y 2]) alpha)
(let ([x #<<E
x
E
] [y "x
  y"]) alpha)
(let ([x 1]

[y 2]) alpha)
(let ([when alpha beta] [cond [gamma delta]]) zeta)
(let ([x (when alpha beta)] [y (lambda (z) gamma)]) delta)
(let (x [y]) alpha)
(let () alpha)
(let (#:key [when alpha beta]) gamma)
(let ([x . 1] . [y 2]) alpha)
(for ([x alpha] #:when (beta x) [y gamma]) (delta x y))

; other than a list of bindings
(let '([x 1]) alpha)
(let #([x 1]) alpha beta)
(let #:key ([x 1]) alpha)
(let "text" ([x 1]) alpha)
(let #:one #:two ([when 1 2]) alpha)
(let loop ([x 1]))
(let loop alpha beta)
(let loop '([when x 1]) alpha)
(for/fold loop ([x 1]) alpha)
(for/fold ([when x 1]) ([when y 2]) (alpha x y))
(for/fold ([x 1] #:result x) ([y 2]) alpha)
(bindings-3 loop ([x 1]) ([y 2]) ([z 3]) alpha)

; dots
(let . alpha)
(let ([x 1]) . alpha)
(let ([x 1]) alpha . beta)
(let . ([x 1]))
(([x 1]) . let . alpha)
(let loop . ([when x 1]))

; lists in lists
(let ([x 1]) (let ([y 2]) (let ([z 3]) (alpha x y z))))
(let ([x (let ([y 2]) alpha)]) beta)
(let loop ([x 1]) (when alpha (loop (add1 x))))
(for/list ([x (let ([y 2]) alpha)] [z beta]) (gamma x z))
