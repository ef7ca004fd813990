C     THE GAME OF LIFE: A GLIDER ON A BOARD WITH A DEAD RIM.  AFTER FOUR
C     GENERATIONS IT STANDS ONE ROW LOWER AND ONE COLUMN TO THE RIGHT.
      PROGRAM LIFE
      PARAMETER (N = 6)
      INTEGER CELL(0:N+1,0:N+1), NEAR(N,N)
      CELL(1,2) = 1
      CELL(2,3) = 1
      DO 10 J = 1, 3
   10 CELL(3,J) = 1
      DO 40 IGEN = 0, 4
      PRINT *, 'GENERATION', IGEN
      DO 20 I = 1, N
   20 PRINT *, (CELL(I,J), J = 1, N)
      DO 30 J = 1, N
      DO 30 I = 1, N
   30 NEAR(I,J) = CELL(I-1,J-1) + CELL(I-1,J) + CELL(I-1,J+1)
     1          + CELL(I,J-1)                 + CELL(I,J+1)
     2          + CELL(I+1,J-1) + CELL(I+1,J) + CELL(I+1,J+1)
      DO 40 J = 1, N
      DO 40 I = 1, N
      IF (NEAR(I,J) .EQ. 3) THEN
         CELL(I,J) = 1
      ELSE IF (NEAR(I,J) .NE. 2) THEN
         CELL(I,J) = 0
      END IF
   40 CONTINUE
      END
