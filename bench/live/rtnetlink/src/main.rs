//! `rtnetlink_peer HOW links|routes SECONDS`: the reader of bench/run-live by the crate rtnetlink, which reads each
//! message into a value of its own, with its attributes. They do not say how long the kernel's were: `sum` stays 0.

#[path = "../../report.rs"]
mod report;

use futures::stream::TryStreamExt;
use report::Counts;
use rtnetlink::{Handle, IpVersion};
use std::error::Error;

async fn links(handle: &Handle) -> Result<Counts, Box<dyn Error>> {
    let mut counts = Counts::default();
    let mut list = handle.link().get().execute();
    while let Some(link) = list.try_next().await? {
        counts.messages += 1;
        counts.attributes += link.nlas.len() as u64;
    }
    Ok(counts)
}

async fn routes(handle: &Handle) -> Result<Counts, Box<dyn Error>> {
    let mut counts = Counts::default();
    let mut list = handle.route().get(IpVersion::V4).execute();
    while let Some(route) = list.try_next().await? {
        counts.messages += 1;
        counts.attributes += route.nlas.len() as u64;
    }
    Ok(counts)
}

async fn read(is_links: bool) -> Result<Counts, Box<dyn Error>> {
    let (connection, handle, _) = rtnetlink::new_connection()?;
    tokio::spawn(connection);
    if is_links {
        links(&handle).await
    } else {
        routes(&handle).await
    }
}

fn main() -> Result<(), Box<dyn Error>> {
    report::run(|_, is_links| {
        let runtime = tokio::runtime::Builder::new_current_thread().enable_all().build()?;
        runtime.block_on(read(is_links))
    })
}
