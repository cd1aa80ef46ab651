//! A publish: who gets a copy, and what is retained.
use crate::access::allowed;
use crate::fields::{num, only, text, Line};
use crate::refused::{Refused, R};
use crate::topics::bad_text;
use crate::world::{AtFilter, Copy, Outcome, Retained, Sub, World};
use std::rc::Rc;

impl World {
    pub(crate) fn publish(&mut self, o: &Line, out: &mut Vec<Copy>) -> R<Outcome> {
        only(o, &["client", "topic", "payload", "qos", "retain", "expiry"])?;
        let (c, t, p, qos, retain, expiry) = (
            text(&o.client)?,
            text(&o.topic)?,
            o.payload.as_deref().unwrap_or(""),
            num(o.qos, 0, 2)?.unwrap_or(0) as u8,
            o.retain.unwrap_or(false),
            num(o.expiry, 0, 4294967295)?,
        );
        let c = self.client(c, true)?;
        if bad_text(t, false) {
            return Err(Refused(8, 0));
        }
        if !allowed(&self.acl, &c, self.sessions[&c].user.as_deref(), t, 2) {
            return Err(Refused(11, 0));
        }
        let stores = retain && !p.is_empty() && expiry != Some(0);
        let old = if retain {
            self.retained.get(t).map(|r| (r.topic.clone(), r.deadline))
        } else {
            None
        };
        if stores && old.is_none() && self.max_retained.map_or(false, |m| self.kept >= m) {
            return Err(Refused(14, 0));
        }
        let (topic, payload): (Rc<str>, Rc<str>) = (Rc::from(t), Rc::from(p));
        let mut found = vec![];
        self.subs.for_name(Some(t), true, &mut found);
        let mut by: Vec<(&Rc<str>, &Sub)> = vec![];
        let mut picked: Vec<(String, Rc<str>, Rc<str>)> = vec![];
        let mut group_copies = vec![];
        for at in &found {
            for (k, s) in &at.direct {
                if s.no_local && *k == c {
                    continue;
                }
                by.push((k, s));
            }
        }
        let mut groups: Vec<(&String, &AtFilter)> = found
            .iter()
            .flat_map(|a| a.groups.keys().map(move |g| (g, *a)))
            .collect();
        groups.sort_by(|a, b| a.0.cmp(b.0)); // stable: found is in level order
        for (g, at) in groups {
            for (k, s) in &at.groups[g] {
                let ses = &self.sessions[k];
                if !ses.connected || !allowed(&self.acl, k, ses.user.as_deref(), t, 1) {
                    continue;
                }
                group_copies.push(Copy {
                    client: k.clone(),
                    topic: topic.clone(),
                    payload: payload.clone(),
                    qos: qos.min(s.qos),
                    retain: retain && s.rap,
                    expiry,
                    ids: s.id.into_iter().collect(),
                    group: Some((g.clone(), at.filter.clone())),
                });
                picked.push((g.clone(), at.filter.clone(), k.clone()));
                break;
            }
        }
        let mut waits = 0;
        by.sort_by(|a, b| a.0.cmp(b.0));
        let mut at = 0;
        while at < by.len() {
            let from = at;
            let k = by[at].0;
            while at < by.len() && (Rc::ptr_eq(by[at].0, k) || by[at].0 == k) {
                at += 1
            }
            let ses = self.sessions.get_mut(k).unwrap();
            if !allowed(&self.acl, k, ses.user.as_deref(), t, 1) {
                continue;
            }
            let own = &by[from..at];
            let q = own.iter().map(|x| x.1.qos).max().unwrap();
            let rap = own.iter().any(|x| x.1.rap);
            let mut ids: Vec<u32> = own.iter().filter_map(|x| x.1.id).collect();
            ids.sort();
            let copy = Copy {
                client: k.clone(),
                topic: topic.clone(),
                payload: payload.clone(),
                qos: qos.min(q),
                retain: retain && rap,
                expiry,
                ids,
                group: None,
            };
            if ses.connected {
                out.push(copy)
            } else if copy.qos > 0 && ses.waiting.len() < self.max_queued {
                ses.waiting.push_back((copy, expiry.map(|e| e + self.moment)));
                waits += 1
            }
        }
        out.extend(group_copies);
        for (g, f, k) in picked {
            let m = self.subs.entry(&f).as_mut().unwrap().groups.get_mut(&g).unwrap();
            let s = m.shift_remove(&k).unwrap();
            m.insert(k, s);
        }
        if retain {
            if let Some((t2, d)) = old {
                if let Some(d) = d {
                    self.by_deadline.remove(&(d, t2));
                }
                if !stores {
                    self.retained.take(t);
                    self.kept -= 1
                }
            } else if stores {
                self.kept += 1
            }
            if stores {
                let deadline = expiry.map(|e| e + self.moment);
                if let Some(d) = deadline {
                    self.by_deadline.insert((d, topic.clone()));
                }
                *self.retained.entry(t) = Some(Retained {
                    topic,
                    payload,
                    qos,
                    publisher: c,
                    deadline,
                });
            }
        }
        Ok(Outcome::Reason(if out.is_empty() && waits == 0 { 16 } else { 0 }))
    }
}
