C     PASCAL'S TRIANGLE.  A ROW IS MADE OF THE ROW BEFORE IN ITS PLACE,
C     FROM RIGHT TO LEFT.
      PROGRAM PASCAL
      PARAMETER (N = 10)
      INTEGER ROW(0:N)
      ROW(0) = 1
      PRINT *, ROW(0)
      DO 20 I = 1, N
      DO 10 J = I, 1, -1
   10 ROW(J) = ROW(J) + ROW(J-1)
   20 PRINT *, (ROW(J), J = 0, I)
      END
