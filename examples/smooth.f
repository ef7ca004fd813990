C     A STENCIL OF THREE POINTS, AND ITS COPY BACK.  THE TWO STATEMENTS
C     DEPEND ON EACH OTHER FROM SWEEP TO SWEEP, NOT WITHIN ONE.
      PROGRAM SMOOTH
      PARAMETER (N = 8, M = 3)
      INTEGER A(0:N+1), B(N)
      READ *, (A(I), I = 1, N)
      DO 30 K = 1, M
      DO 10 I = 1, N
   10 B(I) = (A(I-1) + 2 * A(I) + A(I+1)) / 4
      DO 20 I = 1, N
   20 A(I) = B(I)
   30 CONTINUE
      PRINT *, (A(I), I = 1, N)
      END
*DATA
0 0 0 64 64 0 0 0
