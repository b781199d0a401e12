-- smplan_agent: every decision of a server's side by the proved functions (include/sm_agent.h). sm.route of smplan finds them by itself.
CREATE FUNCTION sm.agent(name text, numbers bigint[]) RETURNS bigint[] LANGUAGE c IMMUTABLE STRICT PARALLEL SAFE AS 'MODULE_PATHNAME', 'smplan_agent';
