-- Statements may be spelled in any way that the grammar has.
upsert into kv values ('it''s', 'x'); -- end
select/* all of it */*from "KV";
-- A text that is no statement is refused at its first place where none goes on, and the next one runs.
SELECT;
SELECT ID FROM ORDERS JOIN KV;
SELECT * FROM KV WHERE K = 'a
