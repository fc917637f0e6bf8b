; as many slots as stand here
'()
'(alpha)
'(alpha (beta gamma))
'(alpha (beta gamma) delta)
#()
#((alpha beta))
#((alpha beta) gamma)
#((alpha beta) gamma (delta (zeta eta)))
((alpha beta))
((alpha beta) alpha)
((alpha beta) alpha (beta gamma))
((alpha beta) alpha (beta gamma) delta)
("text")
("text" (alpha beta))
("text" (alpha beta) gamma)
("text" (alpha beta) gamma (delta (zeta eta)))
(quote)
(quote alpha)
(quote alpha (beta gamma))
(quote alpha (beta gamma) delta)
`[cond]
`[cond alpha]
`[cond alpha (beta gamma)]
`[cond alpha (beta gamma) delta]

; a comment at the line's end
'(; c
iota alpha (beta gamma))
((alpha beta) ; c
alpha (beta gamma))
(quote alpha ; c
(beta gamma))
'(iota alpha (beta gamma) ; c
delta)
((alpha beta) alpha (beta gamma) ; c
)

; a comment of its own line
#(
; c
iota (alpha beta) gamma)
("text"
; c
(alpha beta) gamma)
`[cond alpha
; c
(beta gamma) delta]
#(iota (alpha beta) gamma
; c
(delta (zeta eta)))
("text" (alpha beta) gamma (delta (zeta eta))
; c
)

; a block comment
(#| c |# (alpha beta) alpha (beta gamma))
(quote #| c |# alpha (beta gamma))
'(iota alpha #| c |# (beta gamma))
((alpha beta) alpha (beta gamma) #| c |# delta)
(quote alpha #| c |#)

; a block comment of two lines
(#| c
 d |# "text" (alpha beta) gamma)
`[cond #| c
 d |# alpha (beta gamma)]
#(iota (alpha beta) #| c
 d |# gamma (delta (zeta eta)))
("text" (alpha beta) gamma #| c
 d |# (delta (zeta eta)))
`[cond alpha (beta gamma) #| c
 d |#]

; a datum comment
(#;(x y) quote alpha (beta gamma))
'(iota #;(x y) alpha (beta gamma))
((alpha beta) alpha #;(x y) (beta gamma))
(quote alpha (beta gamma) #;(x y) delta)
'(iota alpha (beta gamma) delta #;(x y))

; a keyword and its datum
`[#:key cond alpha (beta gamma)]
#(iota #:key (alpha beta) gamma)
("text" (alpha beta) #:key gamma (delta (zeta eta)))
`[cond alpha (beta gamma) #:key delta]
#(iota (alpha beta) #:last)

; two keywords
#(#:one #:two iota (alpha beta) gamma)
("text" #:one #:two (alpha beta) gamma)
`[cond alpha #:one #:two (beta gamma)]
#(iota (alpha beta) gamma #:one #:two (delta (zeta eta)))
("text" (alpha beta) gamma #:one #:two)

; a here string
(#<<E
x
E
alpha (beta gamma))
(quote #<<E
x
E
(beta gamma))
'(iota alpha #<<E
x
E
delta)
((alpha beta) alpha (beta gamma) #<<E
x
E
)
(quote alpha (beta gamma) delta #<<E
x
E
)

; a string of two lines
("x
  y" (alpha beta) gamma)
`[cond "x
  y" (beta gamma)]
#(iota (alpha beta) "x
  y")
("text" (alpha beta) gamma "x
  y")
`[cond alpha "x
  y"]

; a blank line
(

quote alpha (beta gamma))
'(iota

alpha (beta gamma))
((alpha beta) alpha

(beta gamma) delta)
(quote alpha (beta gamma)

delta)
'(iota alpha (beta gamma)

)

; two comments
`[; c
; d
cond alpha (beta gamma)]
#(iota ; c
; d
(alpha beta) gamma)
("text" (alpha beta) ; c
; d
gamma)
`[cond alpha (beta gamma) ; c
; d
delta]
#(iota (alpha beta) gamma (delta (zeta eta)) ; c
; d
)

; dots
'(alpha . beta)
'(alpha (beta gamma) . delta)
'(alpha . when . beta)
#hash((alpha . 1) (beta . (gamma delta)))
'(alpha ; c
. beta)
'(alpha . ; c
beta)
'((alpha) . #<<E
x
E
)
#hasheq((alpha . "x
  y") (beta . #;z 2))

; quotes
'(when alpha (let ([beta 1]) gamma))
`(when alpha ,(when beta gamma))
`(alpha ,@(if beta gamma delta) zeta)
#(alpha `(beta ,(when gamma delta)))
#'(when alpha beta)
#`(when alpha #,(if beta gamma delta))
#&(cond [alpha beta])
#0=(if alpha beta gamma)
' ; c
(alpha beta)
'
; c
(alpha beta gamma)
'#| c |# (alpha beta)
'#;(alpha) (beta gamma)
#;(alpha (beta gamma) delta)
#;#;alpha (beta) gamma
''(alpha ,beta)
'(alpha ,(cond [beta gamma]))
(quote (when alpha beta))
((when alpha beta) gamma)
(#:key alpha beta (gamma delta))
'#:key
#fl(1.0 2.0) #3(alpha beta) #s(gamma delta)
