C     SOLVES L*X = B BY FORWARD SUBSTITUTION.  L IS LOWER TRIANGULAR AND
C     HAS ONES ON ITS DIAGONAL.  B BECOMES X.
      PROGRAM SOLVE
      PARAMETER (N = 4)
      INTEGER L(N,N), B(N)
      READ *, ((L(I,J), J = 1, N), I = 1, N), B
      DO 20 I = 2, N
      DO 10 J = 1, I - 1
   10 B(I) = B(I) - L(I,J) * B(J)
   20 CONTINUE
      PRINT *, B
      END
*DATA
1 0 0 0
2 1 0 0
-1 3 1 0
4 0 -2 1
1 5 11 -3
