C     RELAXATION ON A SQUARE GRID WITH ONE HOT SIDE.  A SWEEP GIVES EACH
C     INNER POINT THE MEAN OF ITS FOUR NEIGHBOURS, ROUNDED DOWN.
      PROGRAM RELAX
      PARAMETER (N = 4)
      INTEGER U(0:N,0:N), V(0:N,0:N)
      DO 10 I = 0, N
   10 U(I,0) = 64
      DO 30 ITER = 1, 2
      DO 20 J = 1, N - 1
      DO 20 I = 1, N - 1
   20 V(I,J) = (U(I-1,J) + U(I+1,J) + U(I,J-1) + U(I,J+1)) / 4
      DO 30 J = 1, N - 1
      DO 30 I = 1, N - 1
   30 U(I,J) = V(I,J)
      PRINT *, (U(I,1), I = 0, N)
      END
