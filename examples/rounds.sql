-- Lines of --- divide rounds. A line that begins with @n is of session n, each other one of session 1.
CREATE TABLE STOCK (SKU VARCHAR NOT NULL, SHELF SMALLINT NOT NULL, PIECES INTEGER CONSTRAINT PK PRIMARY KEY (SKU, SHELF DESC));
---
UPSERT INTO STOCK VALUES ('nut', 1, 40);
UPSERT INTO STOCK VALUES ('nut', 2, 12);
@2 UPSERT INTO STOCK VALUES ('bolt', 1, NULL);
@2 UPSERT INTO STOCK VALUES ('bolt', 7, 3);
---
SELECT * FROM STOCK;
@2 SELECT SKU, SHELF FROM STOCK WHERE PIECES < 20 OR PIECES IS NULL ORDER BY PIECES, SKU LIMIT 2;
@3 !scn 1
@3 SELECT * FROM STOCK;
---
-- A setting lasts: session 3 still reads what was there before stamp 1, and may change nothing.
@3 SELECT * FROM STOCK;
@3 DROP TABLE STOCK;
@3 !scn off
@3 DROP TABLE STOCK;
