C     Z = A*X + Y, ELEMENT BY ELEMENT.  NO TURN NEEDS ANOTHER ONE.
      PROGRAM AXPY
      PARAMETER (N = 6)
      INTEGER A, X(N), Y(N), Z(N)
      READ *, A, X, Y
      DO 10 I = 1, N
   10 Z(I) = A * X(I) + Y(I)
      PRINT *, Z
      END
*DATA
3
1 2 3 4 5 6
10 0 -10 20 0 -20
