(require racket/list racket/string)
(provide area)
(foo alpha beta)
