; as many slots as stand here
(cond)
(cond [alpha (beta gamma)])
(cond [alpha (beta gamma)] [(delta zeta) eta theta])
(cond [alpha (beta gamma)] [(delta zeta) eta theta] [else (iota kappa)])
(case)
(case alpha)
(case alpha [alpha (beta gamma)])
(case alpha [alpha (beta gamma)] [(delta zeta) eta theta])
[match]
[match alpha]
[match alpha [alpha (beta gamma)]]
[match alpha [alpha (beta gamma)] [(delta zeta) eta theta]]
(syntax-case)
(syntax-case alpha)
(syntax-case alpha (beta gamma))
(syntax-case alpha (beta gamma) [alpha (beta gamma)])
(syntax-case alpha (beta gamma) [alpha (beta gamma)] [(delta zeta) eta theta])
(clauses-3)
(clauses-3 alpha)
(clauses-3 alpha (beta gamma))
(clauses-3 alpha (beta gamma) delta)
(clauses-3 alpha (beta gamma) delta [alpha (beta gamma)])
(clauses-3 alpha (beta gamma) delta [alpha (beta gamma)] [(delta zeta) eta theta])
(clauses-flat)
(clauses-flat [alpha (beta gamma)])
(clauses-flat [alpha (beta gamma)] [(delta zeta) eta theta])
(clauses-flat [alpha (beta gamma)] [(delta zeta) eta theta] [else (iota kappa)])

; a comment at the line's end
(; c
cond [alpha (beta gamma)])
(syntax-case ; c
alpha (beta gamma) [alpha (beta gamma)])
(clauses-3 alpha (beta gamma) delta ; c
[alpha (beta gamma)])
(cond [alpha (beta gamma)] ; c
[(delta zeta) eta theta])
[match alpha [alpha (beta gamma)] ; c
]

; a comment of its own line
(
; c
case alpha [alpha (beta gamma)])
(clauses-3 alpha
; c
(beta gamma) delta [alpha (beta gamma)])
(clauses-flat
; c
[alpha (beta gamma)] [(delta zeta) eta theta])
(case alpha [alpha (beta gamma)]
; c
[(delta zeta) eta theta])
(syntax-case alpha (beta gamma) [alpha (beta gamma)] [(delta zeta) eta theta]
; c
)

; a block comment
[#| c |# match alpha [alpha (beta gamma)]]
(case #| c |# alpha [alpha (beta gamma)])
(cond #| c |# [alpha (beta gamma)])
[match alpha [alpha (beta gamma)] #| c |# [(delta zeta) eta theta]]
(clauses-3 alpha (beta gamma) delta #| c |#)

; a block comment of two lines
(#| c
 d |# syntax-case alpha (beta gamma) [alpha (beta gamma)])
[match #| c
 d |# alpha [alpha (beta gamma)]]
(case alpha #| c
 d |# [alpha (beta gamma)] [(delta zeta) eta theta])
(syntax-case alpha (beta gamma) [alpha (beta gamma)] #| c
 d |# [(delta zeta) eta theta])
(clauses-flat [alpha (beta gamma)] #| c
 d |#)

; a datum comment
(#;(x y) clauses-3 alpha (beta gamma) delta [alpha (beta gamma)])
(clauses-3 alpha #;(x y) (beta gamma) delta [alpha (beta gamma)])
[match alpha #;(x y) [alpha (beta gamma)]]
(clauses-3 alpha (beta gamma) delta [alpha (beta gamma)] #;(x y) [(delta zeta) eta theta])
(cond [alpha (beta gamma)] [(delta zeta) eta theta] #;(x y))

; a keyword and its datum
(#:key clauses-flat [alpha (beta gamma)])
(case #:key alpha [alpha (beta gamma)])
(syntax-case alpha (beta gamma) #:key [alpha (beta gamma)] [(delta zeta) eta theta])
(clauses-flat [alpha (beta gamma)] #:key [(delta zeta) eta theta])
(case alpha #:last)

; two keywords
(#:one #:two case alpha [alpha (beta gamma)])
[match #:one #:two alpha [alpha (beta gamma)]]
(clauses-flat #:one #:two [alpha (beta gamma)])
(case alpha [alpha (beta gamma)] #:one #:two [(delta zeta) eta theta])
(syntax-case alpha (beta gamma) [alpha (beta gamma)] #:one #:two)

; a here string
[#<<E
x
E
alpha [alpha (beta gamma)]]
(syntax-case alpha #<<E
x
E
[alpha (beta gamma)])
(cond #<<E
x
E
[(delta zeta) eta theta])
[match alpha [alpha (beta gamma)] #<<E
x
E
]
(clauses-3 alpha (beta gamma) delta [alpha (beta gamma)] [(delta zeta) eta theta] #<<E
x
E
)

; a string of two lines
("x
  y" alpha (beta gamma) [alpha (beta gamma)])
(case "x
  y" [alpha (beta gamma)])
(case alpha "x
  y")
(syntax-case alpha (beta gamma) [alpha (beta gamma)] "x
  y")
(clauses-flat [alpha (beta gamma)] "x
  y")

; a blank line
(

clauses-3 alpha (beta gamma) delta [alpha (beta gamma)])
[match

alpha [alpha (beta gamma)]]
[match alpha

[alpha (beta gamma)] [(delta zeta) eta theta]]
(clauses-3 alpha (beta gamma) delta [alpha (beta gamma)]

[(delta zeta) eta theta])
(cond [alpha (beta gamma)]

)

; two comments
(; c
; d
clauses-flat [alpha (beta gamma)])
(syntax-case ; c
; d
alpha (beta gamma) [alpha (beta gamma)])
(syntax-case alpha (beta gamma) ; c
; d
[alpha (beta gamma)])
(clauses-flat [alpha (beta gamma)] ; c
; d
[(delta zeta) eta theta])
(case alpha [alpha (beta gamma)] [(delta zeta) eta theta] ; c
; d
)

; in a clause
(cond [alpha ; c
(beta gamma)] [else delta])
(cond [alpha
; c
(beta gamma)] [else delta])
(cond [#| c |# alpha beta] [else #;x delta])
(cond [alpha #<<E
x
E
] [else "x
  y"])
(cond [(alpha) => beta] (else gamma) {delta zeta})
(cond [when alpha beta] [cond [gamma delta]])
(case alpha [(1 2) . (beta)] [(3) (when gamma delta)])
(cond [alpha

beta] [] [gamma])
(cond #:key [when alpha beta] [gamma delta])
(cond alpha '[when beta gamma] #(delta zeta) (eta theta))
(cond [alpha (cond [beta gamma] [else (cond [delta zeta])])])
(match alpha [(list beta gamma) #:when delta (zeta eta)] [_ theta])

; dots
(cond . alpha)
(cond . [when alpha beta])
(cond [alpha beta] . ([gamma delta]))
(case alpha . [beta gamma])
([alpha] . case . [beta])
(cond [alpha . beta] [gamma . delta . zeta])
