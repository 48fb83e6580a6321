$( A constant, $( in a comment.
