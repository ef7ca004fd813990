C     A PLANE ROTATION, AS IN THE BLAS: EACH VECTOR HAS A RUNNING INDEX
C     OF ITS OWN, AND ONE TEMPORARY SERVES TWICE IN EACH TURN.
      PROGRAM ROTATE
      PARAMETER (N = 5, INCX = 2, INCY = -1)
      INTEGER X(2*N), Y(N), TEMP
      READ *, X, Y
      IX = 1
      IY = N
      DO 10 I = 1, N
      TEMP = X(IX)
      X(IX) = 3 * TEMP + 4 * Y(IY)
      TEMP = 3 * Y(IY) - 4 * TEMP
      Y(IY) = TEMP
      IX = IX + INCX
   10 IY = IY + INCY
      PRINT *, X
      PRINT *, Y
      PRINT *, IX, IY, TEMP
      END
*DATA
1 0 2 0 3 0 4 0 5 0
5 4 3 2 1
