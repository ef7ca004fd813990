C     THE GAME OF LIFE ON A BOARD WHOSE EDGES MEET.  THE INPUT HAS THE
C     NUMBER OF GENERATIONS AND OF LIVING CELLS, AND THE ROW AND COLUMN
C     OF EACH.  A RIM ROUND THE BOARD HAS COPIES OF THE OTHER SIDE.
      PROGRAM BOARD
      IMPLICIT NONE
      INTEGER N
      PARAMETER (N = 10)
      INTEGER CELL(0:N+1,0:N+1), NEAR(N,N), OLD(N,N)
      INTEGER INROW(N), INCOL(N)
      INTEGER I, J, K, IGEN, NGEN, NCELL, NALIVE
      LOGICAL STILL
C
C     THE BOARD IS EMPTY, AND IS THEN FILLED.
C
      DO J = 0, N + 1
         DO I = 0, N + 1
            CELL(I,J) = 0
         END DO
      END DO
      READ *, NGEN, NCELL
      DO K = 1, NCELL
         READ *, I, J
         IF (I .LT. 1 .OR. I .GT. N .OR. J .LT. 1 .OR. J .GT. N) THEN
            PRINT *, 'NO CELL OF THE BOARD:', I, J
            STOP
         END IF
         CELL(I,J) = 1
      END DO
      PRINT *, 'AT FIRST'
      DO I = 1, N
         PRINT *, (CELL(I,J), J = 1, N)
      END DO
C
C     ONE GENERATION AFTER ANOTHER.
C
      DO IGEN = 1, NGEN
         DO I = 1, N
            CELL(I,0) = CELL(I,N)
            CELL(I,N+1) = CELL(I,1)
         END DO
         DO J = 0, N + 1
            CELL(0,J) = CELL(N,J)
            CELL(N+1,J) = CELL(1,J)
         END DO
         DO J = 1, N
            DO I = 1, N
               OLD(I,J) = CELL(I,J)
               NEAR(I,J) = CELL(I-1,J-1) + CELL(I-1,J) + CELL(I-1,J+1)
     1                   + CELL(I,J-1)                 + CELL(I,J+1)
     2                   + CELL(I+1,J-1) + CELL(I+1,J) + CELL(I+1,J+1)
            END DO
         END DO
         DO J = 1, N
            DO I = 1, N
               IF (NEAR(I,J) .EQ. 3) THEN
                  CELL(I,J) = 1
               ELSE IF (NEAR(I,J) .NE. 2) THEN
                  CELL(I,J) = 0
               END IF
            END DO
         END DO
C
C     HAS ANYTHING CHANGED, AND HOW MANY ARE ALIVE?
C
         STILL = .TRUE.
         NALIVE = 0
         DO J = 1, N
            DO I = 1, N
               STILL = STILL .AND. CELL(I,J) .EQ. OLD(I,J)
               NALIVE = NALIVE + CELL(I,J)
            END DO
         END DO
         PRINT *, 'GENERATION', IGEN, NALIVE, STILL
         IF (STILL) GO TO 110
      END DO
  110 PRINT *, 'AT LAST'
      DO I = 1, N
         INROW(I) = 0
         INCOL(I) = 0
      END DO
      DO J = 1, N
         DO I = 1, N
            INROW(I) = INROW(I) + CELL(I,J)
            INCOL(J) = INCOL(J) + CELL(I,J)
         END DO
      END DO
      DO I = 1, N
         PRINT *, (CELL(I,J), J = 1, N), INROW(I)
      END DO
      PRINT *, INCOL
      END
*DATA
12 7
5 4
5 5
5 6
4 6
3 5
8 2
8 3
