CREATE TABLE nations (id INT, name TEXT);
CREATE TABLE customers (id INT, name TEXT, nation INT);
CREATE TABLE orders (id INT, cust INT, status TEXT);
CREATE TABLE lineitems (order_id INT, part TEXT, qty INT);
-- open orders of one nation
SELECT c.name AS customer, o.id AS "order", part, l.qty
FROM customers c JOIN orders o ON o.cust = c.id
JOIN lineitems l ON l.order_id = o.id
JOIN nations n ON c.nation = n.id
WHERE n.name = 'PERU' AND status = 'O' AND qty BETWEEN 20 AND 29;
